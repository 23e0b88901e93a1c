; Static fields of texts: with constants, and written by two initializers and by main.
.class public Main
.super Base
.field public static third Ljava/lang/String; = "a text of a static field that is longer than the others, so that its print needs more memory"

.method static <clinit>()V
.limit stack 1
aconst_null
putstatic Main/third Ljava/lang/String;
return
.end method

.method static show(Ljava/lang/String;)V
.limit stack 2
.limit locals 1
getstatic java/lang/System/out Ljava/io/PrintStream;
aload_0
invokevirtual java/io/PrintStream/println(Ljava/lang/String;)V
return
.end method

.method public static main([Ljava/lang/String;)V
.limit stack 1
getstatic Main/first Ljava/lang/String;
invokestatic Main/show(Ljava/lang/String;)V
getstatic Main/second Ljava/lang/String;
invokestatic Main/show(Ljava/lang/String;)V
getstatic Main/third Ljava/lang/String;
invokestatic Main/show(Ljava/lang/String;)V
ldc "fourth"
putstatic Main/third Ljava/lang/String;
getstatic Main/third Ljava/lang/String;
invokestatic Main/show(Ljava/lang/String;)V
return
.end method
