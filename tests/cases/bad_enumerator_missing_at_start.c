enum e { , A };
