; Uses Ratio twice, and catches what each use throws.
.class public Report
.super java/lang/Object

.method public static main([Ljava/lang/String;)V
.limit stack 2
.limit locals 1
.catch java/lang/ExceptionInInitializerError from First to AfterFirst using Failed
.catch java/lang/NoClassDefFoundError from Second to AfterSecond using Unusable
First: getstatic Ratio/parts I
AfterFirst: pop
return

Failed: pop                ; the ExceptionInInitializerError
getstatic java/lang/System/out Ljava/io/PrintStream;
ldc "the initializer failed"
invokevirtual java/io/PrintStream/println(Ljava/lang/String;)V
Second: getstatic Ratio/parts I
AfterSecond: pop
return

Unusable: pop              ; the NoClassDefFoundError
getstatic java/lang/System/out Ljava/io/PrintStream;
ldc "the class is unusable"
invokevirtual java/io/PrintStream/println(Ljava/lang/String;)V
return
.end method
