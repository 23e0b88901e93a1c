.class Fails
.field static x I

.method static <clinit>()V
.limit stack 2
invokestatic Main/begin()V
new java/lang/IllegalStateException
athrow
.end method
