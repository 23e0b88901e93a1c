.class Node
.field number I
.field next LNode;

.method <init>(ILNode;)V
.limit stack 2
.limit locals 3
aload_0
iload_1
putfield Node/number I
aload_0
aload_2
putfield Node/next LNode;
return
.end method
