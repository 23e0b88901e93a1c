; Has a local of each of two classes, of which one stays null: Dog dog = null; Cat cat = new Cat();
.class public Main
.super java/lang/Object

.method public static main([Ljava/lang/String;)V
.limit stack 3
.limit locals 3
aconst_null
checkcast Dog              ; the class is named, and not used
astore_1
new Cat
dup
invokespecial Cat/<init>()V
astore_2
getstatic java/lang/System/out Ljava/io/PrintStream;
aload_1
aload_2
if_acmpeq Same
iconst_0
goto Print
Same: iconst_1
Print: invokevirtual java/io/PrintStream/println(Z)V
return
.end method
