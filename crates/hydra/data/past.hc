int a[4]; int main(){ pfor(int i=0;i<8;i++){ a[i]=i+1; print(i);} }
