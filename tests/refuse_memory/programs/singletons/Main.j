; Two objects that all threads share, each asked for twice: one that a synchronized method makes, one that an initializer makes.
.class public Main
.field static one Ljava/lang/Object;

.method static synchronized one()Ljava/lang/Object;
.limit stack 1
getstatic Main/one Ljava/lang/Object;
ifnonnull Made
new java/lang/Object
putstatic Main/one Ljava/lang/Object;
Made: getstatic Main/one Ljava/lang/Object;
areturn
.end method

.method static print(Ljava/lang/Object;Ljava/lang/Object;)V
.limit stack 3
.limit locals 2
getstatic java/lang/System/out Ljava/io/PrintStream;
aload_0
aload_1
if_acmpeq Same
ldc "others"
goto Print
Same: ldc "the same"
Print: invokevirtual java/io/PrintStream/println(Ljava/lang/String;)V
return
.end method

.method public static main([Ljava/lang/String;)V
.limit stack 2
.limit locals 1
invokestatic Main/one()Ljava/lang/Object;
invokestatic Main/one()Ljava/lang/Object;
invokestatic Main/print(Ljava/lang/Object;Ljava/lang/Object;)V
getstatic Holder/one Ljava/lang/Object;
getstatic Holder/one Ljava/lang/Object;
invokestatic Main/print(Ljava/lang/Object;Ljava/lang/Object;)V
return
.end method
