; Prints how many constants there are, how many the constructor counted, and the number of one.
.class public Main
.super java/lang/Object

.method public static main([Ljava/lang/String;)V
.limit stack 2
.limit locals 1
getstatic java/lang/System/out Ljava/io/PrintStream;
invokestatic Level/count()I
invokevirtual java/io/PrintStream/println(I)V
getstatic java/lang/System/out Ljava/io/PrintStream;
getstatic Level/made I
invokevirtual java/io/PrintStream/println(I)V
getstatic java/lang/System/out Ljava/io/PrintStream;
getstatic Level/HIGH LLevel;
invokevirtual Level/ordinal()I
invokevirtual java/io/PrintStream/println(I)V
return
.end method
