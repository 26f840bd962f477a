int x;;
