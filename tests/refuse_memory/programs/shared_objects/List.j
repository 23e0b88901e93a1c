.class List
.field static shared LList;
.field first LNode;

.method static <clinit>()V
.limit stack 1
new List
putstatic List/shared LList;
return
.end method

.method synchronized add(I)V
.limit stack 5
.limit locals 2
aload_0
new Node
dup
iload_1
aload_0
getfield List/first LNode;
invokespecial Node/<init>(ILNode;)V
putfield List/first LNode;
return
.end method

.method synchronized length()I
.limit stack 2
.limit locals 3
iconst_0
istore_1
aload_0
getfield List/first LNode;
astore_2
Again: aload_2
ifnull End
iinc 1 1
aload_2
getfield Node/next LNode;
astore_2
goto Again
End: iload_1
ireturn
.end method
