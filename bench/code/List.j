; Makes a linked list of 100,000 objects, walks it, and prints a sum that hangs on their order.
.class public List
.field number I
.field next LList;

.method <init>(ILList;)V
.limit stack 2
.limit locals 3
aload 0
invokespecial java/lang/Object/<init>()V
aload 0
iload 1
putfield List/number I
aload 0
aload 2
putfield List/next LList;
return
.end method

.method static list()I
.limit stack 4
.limit locals 3
aconst_null
astore 0
iconst_0
istore 1
Make:
iload 1
ldc 100000
if_icmpge Made
new List
dup
iload 1
aload 0
invokespecial List/<init>(ILList;)V
astore 0
iinc 1 1
goto Make
Made:
iconst_0
istore 1
aload 0
astore 2
Walk:
aload 2
ifnull Walked
iload 1
bipush 31
imul
aload 2
getfield List/number I
iadd
istore 1
aload 2
getfield List/next LList;
astore 2
goto Walk
Walked:
iload 1
ireturn
.end method

.method public static main([Ljava/lang/String;)V
.limit stack 2
.limit locals 1
getstatic java/lang/System/out Ljava/io/PrintStream;
invokestatic List/list()I
invokevirtual java/io/PrintStream/println(I)V
return
.end method
