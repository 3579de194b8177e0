extern void mm_put ( int ) ; extern int mm_get ( void ) ; extern int mm_more ( void ) ;
extern void mm_trap ( int ) ; extern char * mm_new ( unsigned ) ;
int main ( void ) {
    char * first = 0 ; char * node = 0 ; int i = 0 ; int c = 0 ; int t = 0 ; int n = 0 ; int s = 0 ;
    while ( 1 ) {
        c = i < 1000000 ;
        if ( c ) {
            node = mm_new ( 16u ) ;
            * ( int * ) ( node + 0 ) = 1 ;
            * ( char * * ) ( node + 8 ) = first ;
            first = node ;
            i = i + 1 ;
        } else { break ; }
    }
    while ( 1 ) {
        c = t < 10 ;
        if ( c ) { t = t + 1 ; } else { break ; }
        node = first ;
        while ( 1 ) {
            c = node == 0 ;
            if ( c ) { break ; }
            n = * ( int * ) ( node + 0 ) ;
            s = s + n ;
            node = * ( char * * ) ( node + 8 ) ;
        }
    }
    mm_put ( s ) ;
    return 0 ;
}
