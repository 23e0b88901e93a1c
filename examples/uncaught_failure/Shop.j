; Prints, uses Rates, and catches nothing either.
.class public Shop
.super java/lang/Object

.method public static main([Ljava/lang/String;)V
.limit stack 2
.limit locals 1
getstatic java/lang/System/out Ljava/io/PrintStream;
ldc "open"
invokevirtual java/io/PrintStream/println(Ljava/lang/String;)V
getstatic Rates/first I    ; throws ExceptionInInitializerError
pop
getstatic java/lang/System/out Ljava/io/PrintStream;
ldc "closed"
invokevirtual java/io/PrintStream/println(Ljava/lang/String;)V
return
.end method
