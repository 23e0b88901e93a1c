; Adds three objects to a list that all threads share, under its monitor, and prints how long it is.
.class public Main

.method public static main([Ljava/lang/String;)V
.limit stack 2
.limit locals 2
iconst_3
istore_1
Again: getstatic List/shared LList;
iload_1
invokevirtual List/add(I)V
iinc 1 -1
iload_1
ifne Again
getstatic java/lang/System/out Ljava/io/PrintStream;
getstatic List/shared LList;
invokevirtual List/length()I
invokevirtual java/io/PrintStream/println(I)V
return
.end method
