extern void mm_put ( int ) ; extern int mm_get ( void ) ; extern int mm_more ( void ) ;
extern void mm_trap ( int ) ; extern char * mm_new ( unsigned ) ;
static char * kept ( char * list , int p ) {
    int n = 0 ; int c = 0 ; char * more = 0 ; char * node = 0 ;
    c = list == 0 ;
    if ( c ) { return 0 ; }
    n = * ( int * ) ( list + 0 ) ;
    more = * ( char * * ) ( list + 8 ) ;
    more = kept ( more , p ) ;
    c = n % p ;
    if ( c ) {
        node = mm_new ( 16u ) ;
        * ( int * ) ( node + 0 ) = n ;
        * ( char * * ) ( node + 8 ) = more ;
        return node ;
    }
    return more ;
}
static char * numbers ( int from , int to ) {
    int c = 0 ; int n = 0 ; char * more = 0 ; char * node = 0 ;
    c = from == to ;
    if ( c ) { return 0 ; }
    n = from + 1 ;
    more = numbers ( n , to ) ;
    node = mm_new ( 16u ) ;
    * ( int * ) ( node + 0 ) = from ;
    * ( char * * ) ( node + 8 ) = more ;
    return node ;
}
static int sieve ( char * list ) {
    int p = 0 ; int c = 0 ; int square = 0 ; char * more = 0 ;
    c = list == 0 ;
    if ( c ) { return 0 ; }
    p = * ( int * ) ( list + 0 ) ;
    more = * ( char * * ) ( list + 8 ) ;
    square = p * p ;
    c = square < 20000 ;
    if ( c ) { more = kept ( more , p ) ; }
    c = sieve ( more ) ;
    c = c + 1 ;
    return c ;
}
int main ( void ) {
    char * list = 0 ; int r = 0 ;
    list = numbers ( 2 , 20000 ) ;
    r = sieve ( list ) ;
    mm_put ( r ) ;
    return 0 ;
}
