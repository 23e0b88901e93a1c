; Reads the field in main.
.class public Car
.super java/lang/Object

.method public static main([Ljava/lang/String;)V
.limit stack 1
.limit locals 1
getstatic Engine/power I
pop
return
.end method
