; Uses three classes whose initializers throw an ArithmeticException, in whose place step 11 makes an ExceptionInInitializerError each
; time, and then the first again. Whatever each use throws is caught, and the thread goes on.
.class public Main

.method static caught(I)V
.limit stack 2
.limit locals 1
getstatic java/lang/System/out Ljava/io/PrintStream;
iload_0
invokevirtual java/io/PrintStream/println(I)V
return
.end method

.method public static main([Ljava/lang/String;)V
.limit stack 2
.catch all from A to B using B
.catch all from C to D using D
.catch all from E to F using F
.catch all from G to H using H
A: getstatic First/x I
B: pop
iconst_1
invokestatic Main/caught(I)V
C: getstatic Second/x I
D: pop
iconst_2
invokestatic Main/caught(I)V
E: getstatic Third/x I
F: pop
iconst_3
invokestatic Main/caught(I)V
G: getstatic First/x I
H: pop
iconst_4
invokestatic Main/caught(I)V
return
.end method
