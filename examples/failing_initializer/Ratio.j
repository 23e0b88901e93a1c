; Its initializer divides by zero. It throws, so the class fails, and is never usable again.
.class public Ratio
.super java/lang/Object
.field static parts I

.method static <clinit>()V
.limit stack 2
iconst_1
getstatic Ratio/parts I    ; 0, the default of its type
idiv                       ; throws ArithmeticException
putstatic Ratio/parts I    ; is never reached
return
.end method
