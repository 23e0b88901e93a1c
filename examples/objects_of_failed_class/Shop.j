; Meets the failed class Part by new, by an object that is there, by new again, and by a subclass.
.class public Shop
.super java/lang/Object
.field static kept LPart;

.method public static main([Ljava/lang/String;)V
.limit stack 2
.limit locals 1
.catch java/lang/ExceptionInInitializerError from First to AfterFirst using Failed
.catch java/lang/NoClassDefFoundError from Second to AfterSecond using Unusable
.catch java/lang/NoClassDefFoundError from Third to AfterThird using Subclass
First: new Part
AfterFirst: pop
return

Failed: pop                ; the ExceptionInInitializerError
getstatic java/lang/System/out Ljava/io/PrintStream;
ldc "Part failed"
invokevirtual java/io/PrintStream/println(Ljava/lang/String;)V
getstatic java/lang/System/out Ljava/io/PrintStream;
getstatic Shop/kept LPart;
invokevirtual Part/number()I
invokevirtual java/io/PrintStream/println(I)V
Second: new Part
AfterSecond: pop
return

Unusable: pop              ; the NoClassDefFoundError
getstatic java/lang/System/out Ljava/io/PrintStream;
ldc "Part is unusable"
invokevirtual java/io/PrintStream/println(Ljava/lang/String;)V
Third: new Spare
AfterThird: pop
return

Subclass: pop              ; the same object once more
getstatic java/lang/System/out Ljava/io/PrintStream;
ldc "and so is Spare"
invokevirtual java/io/PrintStream/println(Ljava/lang/String;)V
return
.end method
