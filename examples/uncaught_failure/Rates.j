; Its initializer reads beyond the end of an array, and catches nothing.
.class public Rates
.super java/lang/Object
.field static first I

.method static <clinit>()V
.limit stack 2
.limit locals 0
iconst_0
newarray int
iconst_0
iaload                     ; throws ArrayIndexOutOfBoundsException
putstatic Rates/first I    ; is never reached
return
.end method
