procedure Main is begin Main; end Main;
