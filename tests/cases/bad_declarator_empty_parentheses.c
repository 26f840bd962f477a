int ();
