; Reaches a depth, and then calls to no greater one: SMALL times methods of small frames, and LARGE times methods of the largest.
.class public Main

.method static small(I)V
.limit stack 2
.limit locals 1
iload_0
ifeq Deepest
iload_0
iconst_1
isub
invokestatic Main/small(I)V
Deepest: return
.end method

.method static large(I)V
.limit stack 1024
.limit locals 1024
iload_0
ifeq Deepest
iload_0
iconst_1
isub
invokestatic Main/large(I)V
Deepest: return
.end method

.method public static main([Ljava/lang/String;)V
.limit stack 1
.limit locals 2
bipush 9
invokestatic Main/small(I)V
bipush SMALL
istore_1
Small: bipush 9
invokestatic Main/small(I)V
iinc 1 -1
iload_1
ifne Small
bipush LARGE
istore_1
Large: bipush 9
invokestatic Main/large(I)V
iinc 1 -1
iload_1
ifne Large
return
.end method
