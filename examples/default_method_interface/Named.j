; Declares a default method, so a class that implements it initializes it.
.interface public Named

.method static <clinit>()V
.limit stack 2
getstatic java/lang/System/out Ljava/io/PrintStream;
ldc "Named"
invokevirtual java/io/PrintStream/println(Ljava/lang/String;)V
return
.end method

.method public name()Ljava/lang/String;
.limit stack 1
.limit locals 1
ldc "no name"
areturn
.end method
