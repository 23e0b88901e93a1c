.class Holder
.field static one Ljava/lang/Object;

.method static <clinit>()V
.limit stack 1
new java/lang/Object
putstatic Holder/one Ljava/lang/Object;
return
.end method
