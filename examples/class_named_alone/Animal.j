; Prints its name when it is initialized.
.class public Animal
.super java/lang/Object

.method public <init>()V
.limit stack 1
.limit locals 1
aload_0
invokespecial java/lang/Object/<init>()V
return
.end method

.method static <clinit>()V
.limit stack 2
.limit locals 0
getstatic java/lang/System/out Ljava/io/PrintStream;
ldc "Animal"
invokevirtual java/io/PrintStream/println(Ljava/lang/String;)V
return
.end method
