.class public Door
.super java/lang/Object
.implements Loud

.method static <clinit>()V
.limit stack 2
getstatic java/lang/System/out Ljava/io/PrintStream;
ldc "Door"
invokevirtual java/io/PrintStream/println(Ljava/lang/String;)V
return
.end method

.method public static main([Ljava/lang/String;)V
.limit stack 2
.limit locals 1
getstatic java/lang/System/out Ljava/io/PrintStream;
getstatic Door/volume I            ; named through Door, declared by Loud
invokevirtual java/io/PrintStream/println(I)V
return
.end method
