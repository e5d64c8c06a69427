procedure Main is begin P ('"'); end Main;
