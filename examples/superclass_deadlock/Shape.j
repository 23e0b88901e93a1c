; Its initializer makes an object of a subclass.
.class public Shape
.super java/lang/Object
.field static unit LShape;

.method public <init>()V
.limit stack 1
.limit locals 1
aload_0
invokespecial java/lang/Object/<init>()V
return
.end method

.method static <clinit>()V
.limit stack 2
.limit locals 0
new Square
dup
invokespecial Square/<init>()V
putstatic Shape/unit LShape;
return
.end method
