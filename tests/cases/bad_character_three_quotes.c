int x = ''';
