typedef int T; int T; static T x;
