; Prints what the one Registry saw when it was made, and what another one sees.
.class public Show
.super java/lang/Object

.method public static main([Ljava/lang/String;)V
.limit stack 3
.limit locals 1
getstatic java/lang/System/out Ljava/io/PrintStream;
getstatic Registry/one LRegistry;
getfield Registry/limitSeen I
invokevirtual java/io/PrintStream/println(I)V
getstatic java/lang/System/out Ljava/io/PrintStream;
getstatic Registry/one LRegistry;
getfield Registry/sizeSeen I
invokevirtual java/io/PrintStream/println(I)V
getstatic java/lang/System/out Ljava/io/PrintStream;
new Registry
dup
invokespecial Registry/<init>()V
getfield Registry/sizeSeen I
invokevirtual java/io/PrintStream/println(I)V
return
.end method
