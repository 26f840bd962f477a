int x = sizeof ();
