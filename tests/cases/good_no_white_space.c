int x=1,*y=&x,z[]={1,2},f(int a,...);void g(void){int a=-1;if(a)x=a;else{for(;;)x++;}while(x>a)--x;do x=0;while(x);switch(x){case 1:break;default:;}l:goto l;}
