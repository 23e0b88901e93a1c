.class public Base
.field public static first Ljava/lang/String; = "first"
.field public static second Ljava/lang/String;

.method static <clinit>()V
.limit stack 1
ldc "second"
putstatic Base/second Ljava/lang/String;
getstatic Main/third Ljava/lang/String;
putstatic Base/first Ljava/lang/String;
return
.end method
