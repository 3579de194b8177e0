extern void mm_put ( int ) ; extern int mm_get ( void ) ; extern int mm_more ( void ) ;
extern void mm_trap ( int ) ; extern char * mm_new ( unsigned ) ;
int main ( void ) {
    int i = 0 ; int s = 0 ; int c = 0 ;
    while ( 1 ) {
        c = i < 10000000 ;
        if ( c ) { s = s + 1 ; i = i + 1 ; } else { break ; }
    }
    mm_put ( s ) ;
    return 0 ;
}
