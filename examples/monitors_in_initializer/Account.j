; Its initializer enters the monitor of an object and doesn't exit it, and calls a synchronized method of the class.
.class public Account
.super java/lang/Object
.field static lock Ljava/lang/Object;
.field static balance I

.method static <clinit>()V
.limit stack 2
.limit locals 0
new java/lang/Object
dup
invokespecial java/lang/Object/<init>()V
dup
putstatic Account/lock Ljava/lang/Object;
monitorenter
bipush 10
invokestatic Account/add(I)V
return
.end method

.method static synchronized add(I)V
.limit stack 2
.limit locals 1
getstatic Account/balance I
iload_0
iadd
putstatic Account/balance I
return
.end method
