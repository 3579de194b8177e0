static int NAME ( int v0 , unsigned v1 ) {
int v2 = 0 ;
int i0 = 0 ;
int i1 = 0 ;
int i2 = 0 ;
unsigned u0 = 0u ;
unsigned u1 = 0u ;
i0 = v0 ;
v2 = i0 ;
while ( 1 ) {
i0 = v2 ;
i1 = 9 ;
i0 = i0 < i1 ;
if ( i0 ) {
}
else {
break ;
}
i0 = v2 ;
i1 = 1 ;
i2 = i1 < 0 ;
if ( i2 ) {
i2 = ( - 2147483647 - 1 ) - i1 ;
i2 = i0 < i2 ;
}
else {
i2 = 2147483647 - i1 ;
i2 = i2 < i0 ;
}
if ( i2 ) {
mm_trap ( 1 ) ;
}
i0 = i0 + i1 ;
v2 = i0 ;
u0 = v1 ;
u1 = 3u ;
i0 = u0 == u1 ;
if ( i0 ) {
i0 = v2 ;
i1 = v0 ;
i2 = 0 < i1 ;
if ( i2 ) {
i2 = 0 < i0 ;
if ( i2 ) {
i2 = 2147483647 / i1 ;
i2 = i2 < i0 ;
}
else {
i2 = ( - 2147483647 - 1 ) / i1 ;
i2 = i0 < i2 ;
}
}
else {
i2 = i1 < - 1 ;
if ( i2 ) {
i2 = 0 < i0 ;
if ( i2 ) {
i2 = ( - 2147483647 - 1 ) / i1 ;
i2 = i2 < i0 ;
}
else {
i2 = 2147483647 / i1 ;
i2 = i0 < i2 ;
}
}
else {
i2 = i1 == - 1 ;
if ( i2 ) {
i2 = i0 == ( - 2147483647 - 1 ) ;
}
}
}
if ( i2 ) {
mm_trap ( 1 ) ;
}
i0 = i0 * i1 ;
i1 = 2 ;
i2 = i1 < 0 ;
if ( i2 ) {
i2 = 2147483647 + i1 ;
i2 = i2 < i0 ;
}
else {
i2 = ( - 2147483647 - 1 ) + i1 ;
i2 = i0 < i2 ;
}
if ( i2 ) {
mm_trap ( 1 ) ;
}
i0 = i0 - i1 ;
return i0 ;
}
else {
}
}
i0 = v2 ;
i1 = v0 ;
i0 = i0 > i1 ;
if ( i0 ) {
i0 = v2 ;
u1 = v1 ;
i0 = CALLED ( i0 , u1 ) ;
}
else {
i0 = v0 ;
i1 = 1 ;
i2 = i1 < 0 ;
if ( i2 ) {
i2 = ( - 2147483647 - 1 ) - i1 ;
i2 = i0 < i2 ;
}
else {
i2 = 2147483647 - i1 ;
i2 = i2 < i0 ;
}
if ( i2 ) {
mm_trap ( 1 ) ;
}
i0 = i0 + i1 ;
}
return i0 ;
mm_trap ( 5 ) ;
return 0 ;
}
