// Counting to three in a marked loop: each turn reads what the turn before it wrote.
int c; int main(){ pwhile(c<3){ print(c); c=c+1; } }
