extern void mm_put ( int ) ; extern int mm_get ( void ) ; extern int mm_more ( void ) ;
extern void mm_trap ( int ) ; extern char * mm_new ( unsigned ) ;
static int down ( int n ) {
    int c = 0 ; int r = 0 ;
    c = n == 0 ;
    if ( c ) { return 0 ; }
    r = n - 1 ;
    r = down ( r ) ;
    r = r + 1 ;
    return r ;
}
int main ( void ) {
    int r = 0 ;
    r = down ( 1000000 ) ;
    mm_put ( r ) ;
    return 0 ;
}
