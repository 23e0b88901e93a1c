.class public Derived
.super Base
.field static final limit I = 10   ; set as soon as the initialization begins
.field static count I              ; set by the initializer, to 3

.method static <clinit>()V
.limit stack 1
iconst_3
putstatic Derived/count I
return
.end method

.method public static main([Ljava/lang/String;)V
.limit stack 2
.limit locals 1
getstatic java/lang/System/out Ljava/io/PrintStream;
getstatic Derived/count I
invokevirtual java/io/PrintStream/println(I)V
return
.end method
