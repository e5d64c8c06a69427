with Ada.Finalization; with Ada.Text_IO; with Ada.Unchecked_Deallocation;
procedure Main is
   type Page is record Lines : Integer := 0; end record;
   type Sheet is access Page;
   type Book is new Ada.Finalization.Controlled with record Front : Sheet; Rear : Sheet; end record;
   overriding procedure Adjust (Object : in out Book);
   procedure Free is new Ada.Unchecked_Deallocation (Page, Sheet);
   overriding procedure Adjust (Object : in out Book) is
      Spare : Sheet;
   begin
      begin
         Spare := new Page'(Lines => 1);
         Object.Rear := new Page'(Lines => 2);
         Object.Front := Spare;
         Spare := null;
      exception
         when Storage_Error =>
            Object.Rear := null;
            Object.Front := null;
            Free (Spare);
      end;
   exception
      when others => null;
   end Adjust;
   One : Book;
   Two : Book;
begin
   Two := One;
   if Two.Front /= null then
      Ada.Text_IO.Put_Line (Integer'Image (Two.Front.Lines + Two.Rear.Lines));
   else
      Ada.Text_IO.Put_Line ("nothing");
   end if;
end Main;
