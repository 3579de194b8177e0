extern void mm_put ( int ) ; extern int mm_get ( void ) ; extern int mm_more ( void ) ;
extern void mm_trap ( int ) ; extern char * mm_new ( unsigned ) ;
static int fib ( int n ) {
    int c = 0 ; int a = 0 ; int b = 0 ;
    c = n < 2 ;
    if ( c ) { return n ; }
    a = n - 1 ;
    a = fib ( a ) ;
    b = n - 2 ;
    b = fib ( b ) ;
    a = a + b ;
    return a ;
}
int main ( void ) {
    int r = 0 ;
    r = fib ( 32 ) ;
    mm_put ( r ) ;
    return 0 ;
}
