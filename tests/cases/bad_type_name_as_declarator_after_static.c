typedef int T; static T = 1;
