; Has one object, which the initializer of Holder makes: at the first call of get, and never before.
.class public Settings
.super java/lang/Object

.method private <init>()V
.limit stack 2
.limit locals 1
aload_0
invokespecial java/lang/Object/<init>()V
getstatic java/lang/System/out Ljava/io/PrintStream;
ldc "made"
invokevirtual java/io/PrintStream/println(Ljava/lang/String;)V
return
.end method

.method public static get()LSettings;
.limit stack 1
.limit locals 0
getstatic Holder/one LSettings;
areturn
.end method
