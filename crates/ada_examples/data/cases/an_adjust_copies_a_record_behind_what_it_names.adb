with Ada.Finalization; with Ada.Text_IO; with Ada.Unchecked_Deallocation;
procedure Main is
   type Page is record Lines : Integer := 0; Printed : Boolean := False; end record;
   type Sheet is access Page;
   type Leaf is record Number : Integer := 0; Next : Sheet; end record;
   type Ref is access Leaf;
   type Frame is record Inside : Page; Price : Integer := 2; end record;
   type Picture is access Frame;
   type Book is new Ada.Finalization.Controlled with record Item : Ref; Shown : Picture; end record;
   overriding procedure Adjust (Object : in out Book);
   overriding procedure Finalize (Object : in out Book);
   procedure Free_Page is new Ada.Unchecked_Deallocation (Page, Sheet);
   procedure Free_Leaf is new Ada.Unchecked_Deallocation (Leaf, Ref);
   procedure Free_Frame is new Ada.Unchecked_Deallocation (Frame, Picture);
   overriding procedure Adjust (Object : in out Book) is
   begin
      Object.Shown := new Frame'(Inside => Object.Item.Next.all, Price => Object.Item.Number);
      Object.Item := null;
   exception
      when Constraint_Error | Storage_Error =>
         Object.Item := null;
         Object.Shown := null;
   end Adjust;
   overriding procedure Finalize (Object : in out Book) is
   begin
      Free_Frame (Object.Shown);
      if Object.Item /= null then
         Free_Page (Object.Item.Next);
      end if;
      Free_Leaf (Object.Item);
   exception
      when Constraint_Error => null;
   end Finalize;
   One : Book;
   Two : Book;
begin
   One.Item := new Leaf'(Number => 7, Next => null);
   Two := One;
   if Two.Shown = null then
      Ada.Text_IO.Put_Line ("no page");
   end if;
   One.Item.Next := new Page'(Lines => 40, Printed => True);
   Two := One;
   One.Item.Next.Lines := 41;
   Ada.Text_IO.Put_Line (Integer'Image (Two.Shown.Price));
   Ada.Text_IO.Put_Line (Integer'Image (Two.Shown.Inside.Lines));
   if Two.Item = null then
      Ada.Text_IO.Put_Line ("no leaf");
   end if;
end Main;
