; Needs its superclass first, and has no initializer of its own.
.class public Square
.super Shape

.method public <init>()V
.limit stack 1
.limit locals 1
aload_0
invokespecial Shape/<init>()V
return
.end method
