procedure Main is -- abegin null; end Main;
