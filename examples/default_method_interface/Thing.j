.class public Thing
.super java/lang/Object
.implements Marked
.implements Named

.method static <clinit>()V
.limit stack 2
getstatic java/lang/System/out Ljava/io/PrintStream;
ldc "Thing"
invokevirtual java/io/PrintStream/println(Ljava/lang/String;)V
return
.end method

.method public static main([Ljava/lang/String;)V
.limit stack 2
.limit locals 1
getstatic java/lang/System/out Ljava/io/PrintStream;
getstatic Thing/number I           ; named through Thing, declared by Marked
invokevirtual java/io/PrintStream/println(I)V
return
.end method

.method public mark()V
.limit stack 0
.limit locals 1
return
.end method
