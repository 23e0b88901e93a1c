; Sorts 10,000 ints in an array by quicksort, and prints a sum that hangs on their order.
.class public Sort

.method static sort([III)V
.limit stack 4
.limit locals 7
Again:
iload 1
iload 2
if_icmpge Sorted
aload 0
iload 1
iload 2
iadd
iconst_1
iushr
iaload
istore 3
iload 1
istore 4
iload 2
istore 5
FromLeft:
aload 0
iload 4
iaload
iload 3
if_icmpge FromRight
iinc 4 1
goto FromLeft
FromRight:
iload 3
aload 0
iload 5
iaload
if_icmpge Exchange
iinc 5 -1
goto FromRight
Exchange:
iload 4
iload 5
if_icmpgt Exchanged
aload 0
iload 4
iaload
istore 6
aload 0
iload 4
aload 0
iload 5
iaload
iastore
aload 0
iload 5
iload 6
iastore
iinc 4 1
iinc 5 -1
Exchanged:
iload 4
iload 5
if_icmple FromLeft
aload 0
iload 1
iload 5
invokestatic Sort/sort([III)V
iload 4
istore 1
goto Again
Sorted:
return
.end method

.method static sort()I
.limit stack 3
.limit locals 4
sipush 10000
newarray int
astore 0
iconst_1
istore 1
iconst_0
istore 2
Fill:
iload 2
sipush 10000
if_icmpge Filled
iload 1
ldc 1103515245
imul
sipush 12345
iadd
istore 1
aload 0
iload 2
iload 1
iastore
iinc 2 1
goto Fill
Filled:
aload 0
iconst_0
sipush 9999
invokestatic Sort/sort([III)V
iconst_0
istore 2
iconst_0
istore 3
Add:
iload 3
sipush 10000
if_icmpge Added
iload 2
bipush 31
imul
aload 0
iload 3
iaload
iadd
istore 2
iinc 3 1
goto Add
Added:
iload 2
ireturn
.end method

.method public static main([Ljava/lang/String;)V
.limit stack 2
.limit locals 1
getstatic java/lang/System/out Ljava/io/PrintStream;
invokestatic Sort/sort()I
invokevirtual java/io/PrintStream/println(I)V
return
.end method
