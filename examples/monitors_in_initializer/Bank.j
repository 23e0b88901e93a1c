; Exits the monitor that the initializer of Account entered, and then once too often.
.class public Bank
.super java/lang/Object

.method public static main([Ljava/lang/String;)V
.limit stack 2
.limit locals 1
.catch java/lang/IllegalMonitorStateException from Again to AfterAgain using Free
getstatic java/lang/System/out Ljava/io/PrintStream;
getstatic Account/balance I
invokevirtual java/io/PrintStream/println(I)V
getstatic Account/lock Ljava/lang/Object;
monitorexit
getstatic java/lang/System/out Ljava/io/PrintStream;
ldc "the monitor was ours"
invokevirtual java/io/PrintStream/println(Ljava/lang/String;)V
Again: getstatic Account/lock Ljava/lang/Object;
monitorexit
AfterAgain: return

Free: pop                  ; the IllegalMonitorStateException
getstatic java/lang/System/out Ljava/io/PrintStream;
ldc "and is free now"
invokevirtual java/io/PrintStream/println(Ljava/lang/String;)V
return
.end method
