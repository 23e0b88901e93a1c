.class public Hello
.super java/lang/Object

.method static <clinit>()V
.limit stack 2
getstatic java/lang/System/out Ljava/io/PrintStream;
iconst_1
invokevirtual java/io/PrintStream/println(I)V
return
.end method

.method public static main([Ljava/lang/String;)V
.limit stack 2
.limit locals 1
getstatic java/lang/System/out Ljava/io/PrintStream;
iconst_2
invokevirtual java/io/PrintStream/println(I)V
return
.end method
