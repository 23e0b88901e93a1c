; Makes its one object before its initializer has set what the object looks at.
.class public Registry
.super java/lang/Object
.field static one LRegistry;
.field static limit I = 5       ; set as soon as the initialization begins
.field static size I            ; set by the initializer, to 3, behind the object
.field limitSeen I
.field sizeSeen I

.method public <init>()V
.limit stack 2
.limit locals 1
aload_0
invokespecial java/lang/Object/<init>()V
aload_0
getstatic Registry/limit I
putfield Registry/limitSeen I
aload_0
getstatic Registry/size I
putfield Registry/sizeSeen I
return
.end method

.method static <clinit>()V
.limit stack 2
.limit locals 0
new Registry
dup
invokespecial Registry/<init>()V
putstatic Registry/one LRegistry;
iconst_3
putstatic Registry/size I
return
.end method
