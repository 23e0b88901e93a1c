.class public NoStock
.super java/lang/Exception

.method public <init>()V
.limit stack 1
.limit locals 1
aload_0
invokespecial java/lang/Exception/<init>()V
return
.end method
