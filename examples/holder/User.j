; Asks for the one object of Settings.
.class public User
.super java/lang/Object

.method public static main([Ljava/lang/String;)V
.limit stack 1
.limit locals 1
invokestatic Settings/get()LSettings;
pop
return
.end method
