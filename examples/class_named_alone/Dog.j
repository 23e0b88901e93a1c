; Prints its name when it is initialized.
.class public Dog
.super Animal

.method public <init>()V
.limit stack 1
.limit locals 1
aload_0
invokespecial Animal/<init>()V
return
.end method

.method static <clinit>()V
.limit stack 2
.limit locals 0
getstatic java/lang/System/out Ljava/io/PrintStream;
ldc "Dog"
invokevirtual java/io/PrintStream/println(Ljava/lang/String;)V
return
.end method
