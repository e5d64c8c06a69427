procedure Main is begin end Main;
