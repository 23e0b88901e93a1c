; The first thread to come ends well. The second throws out of a synchronized method and holds the monitor of an object besides.
.class public Main
.field static lock Ljava/lang/Object;
.field static come I

.method static <clinit>()V
.limit stack 1
new java/lang/Object
putstatic Main/lock Ljava/lang/Object;
return
.end method

.method static synchronized come()V
.limit stack 2
getstatic Main/come I
iconst_1
iadd
dup
putstatic Main/come I
iconst_1
if_icmpeq First
new java/lang/IllegalStateException
athrow
First: return
.end method

.method public static main([Ljava/lang/String;)V
.limit stack 2
.limit locals 1
getstatic Main/lock Ljava/lang/Object;
monitorenter
invokestatic Main/come()V
getstatic Main/lock Ljava/lang/Object;
monitorexit
getstatic java/lang/System/out Ljava/io/PrintStream;
getstatic Main/come I
invokevirtual java/io/PrintStream/println(I)V
return
.end method
